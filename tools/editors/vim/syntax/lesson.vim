" Vim syntax of lessons of the tariff class machine. Copy the folders of tools/editors/vim to ~/.vim.
if exists("b:current_syntax")
  finish
endif

syn match lessonNumber "\v-?<\d+>"
syn match lessonLabel "\v<\k+:"
syn keyword lessonStatement boot loader quote report task step run drop sweep take back change over damage name insurer
    \ class file java quiz mistake order old repeat ready ask offer how
syn keyword lessonWord defines records starts of as extends version field method map at bytes after counts
    \ classes kept cache frames ties subtypes objects off
syn keyword lessonInstruction aconst_null sipush iload aload istore astore pop dup iadd isub ireturn areturn
    \ getfield putfield invokevirtual new ifeq if_icmplt goto imul idiv
syn keyword lessonType int Object
" answers stand behind expect alone
syn match lessonExpect "\v<expect\s+\k+(\s+(list|divisor|used|late)>)?" contains=lessonAnswer
syn keyword lessonAnswer contained accepted class freed idle ran finished wanted broken file unknown taken
    \ unverified absent hidden clash full null busy misnamed stuck unmapped short list zero divisor share used
    \ too late offers found cached none
syn match lessonMistake "\v^\s*mistake\s+[a-z-]+"
syn match lessonComment "#.*$"
syn match lessonWords "\v^\s*\>.*$"

hi def link lessonStatement Statement
hi def link lessonWord Keyword
hi def link lessonInstruction Function
hi def link lessonType Type
hi def link lessonExpect Special
hi def link lessonAnswer Constant
hi def link lessonMistake PreProc
hi def link lessonNumber Number
hi def link lessonLabel Label
hi def link lessonComment Comment
hi def link lessonWords String

let b:current_syntax = "lesson"
