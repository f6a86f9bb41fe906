" Vim's compiler file of Golog: `:compiler golog`, and then `:make` checks the agent file in the window and jumps to its
" fault. Put it into ~/.vim/compiler. The command `golog` stands on the PATH, or `let g:golog` names it.
let current_compiler = 'golog'
let s:golog = get(g:, 'golog', 'golog')
let &l:makeprg = s:golog . ' check %:S'
CompilerSet errorformat=%f:%l:%c:\ %tarning:\ %m,%f:%l:%c:\ %tote:\ %m,%f:%l:%c:\ %m,%-G%.%#
