" Vim syntax of Golog's agent files. Put it into ~/.vim/syntax, and into ~/.vim/ftdetect/golog.vim the line
"     autocmd BufRead,BufNewFile *.agent setfiletype golog
if exists('b:current_syntax')
  finish
endif

syntax case match

syntax match gologWrong "[^[:space:]()]"
syntax match gologName "[A-Za-z0-9_+=<-]\@1<![A-Za-z_][A-Za-z0-9_-]*[A-Za-z0-9_+=<-]\@!"
syntax match gologNumber "[A-Za-z0-9_+=<-]\@1<!\%(0\|-\=[1-9][0-9]*\)[A-Za-z0-9_+=<-]\@!"
syntax match gologConstant "[A-Za-z0-9_+=<-]\@1<!\%(true\|false\|unknown\|nil\)[A-Za-z0-9_+=<-]\@!"
syntax match gologBuiltIn "[A-Za-z0-9_+=<-]\@1<!\%(bool\|interrupts_running\|start_interrupts\|stop_interrupts\)[A-Za-z0-9_+=<-]\@!"
syntax match gologBracket "[()]"
" The first word of a list: a fluent, an action, or a variable with its sort.
syntax match gologUse "\%((\s*\)\@<=[A-Za-z_][A-Za-z0-9_-]*[A-Za-z0-9_+=<-]\@!"
syntax match gologOperator "\%((\s*\)\@<=\%(not\|and\|or\|some\|all\|<=\|<\|=\|+\|-\)[A-Za-z0-9_+=<-]\@!"
syntax match gologProgram "\%((\s*\)\@<=\%(act\|test\|seq\|choice\|pick\|star\|if\|while\|conc\|prio\|cstar\|call\|search\|interrupts\|interrupt\)[A-Za-z0-9_+=<-]\@!"
syntax match gologItem "\%((\s*\)\@<=\%(agent\|start\|poss\|causes\|senses\|main\|sort\|device\|fluent\|action\|exo\|proc\)[A-Za-z0-9_+=<-]\@!"
" The last word of a senses item: it stands between two closing brackets.
syntax match gologItem "\%()\s\+\)\@<=later\%(\s*)\)\@="
syntax match gologDeclared "\%((\s*\%(sort\|device\|fluent\|action\|exo\|proc\)\s\+\)\@<=[A-Za-z_][A-Za-z0-9_-]*[A-Za-z0-9_+=<-]\@!"
syntax match gologComment ";.*$"

highlight default link gologWrong Error
highlight default link gologName Identifier
highlight default link gologNumber Number
highlight default link gologConstant Constant
highlight default link gologBuiltIn Type
highlight default link gologBracket Delimiter
highlight default link gologUse Function
highlight default link gologOperator Operator
highlight default link gologProgram Statement
highlight default link gologItem Keyword
highlight default link gologDeclared Define
highlight default link gologComment Comment

let b:current_syntax = 'golog'
