" Vim syntax file
" Language: the sources of kc96, after the MCS-96 macro assembler (docs/LANGUAGE.md)

if exists("b:current_syntax")
  finish
endif

syn case ignore

syn keyword a96Instruction DPTS EPTS RET PUSHF POPF PUSHA POPA TRAP CLRC SETC DI EI CLRVT NOP RST SKIP CLR NEG
      \ DEC EXT INC CLRB NOTB NEGB DECB EXTB INCB ORB XORB CMP CMPB DIVU DIV DIVUB DIVB LD ADDC SUBC LDBZE LDB
      \ ADDCB SUBCB LDBSE ADD SUB MULU MUL ANDB ADDB SUBB MULUB MULB ST STB XCH XCHB PUSH POP SHRA SHRB SHLB
      \ SHRAB SHRL SHLL SHRAL NORML CMPL BMOV BMOVI SJMP SCALL LJMP LCALL JNST JNH JGT JNC JNVT JNV JGE JNE
      \ JST JH JLE JC JVT JV JLT JE DJNZ DJNZW JBC JBS BR TIJMP IDLPD NOT OR XOR AND SHL SHR
syn keyword a96Branch CALL BE BNE BH BNH BGT BLE BGE BLT BC BNC BV BNV BVT BNVT BST BNST BBC BBS
syn keyword a96Operator LOW HIGH MOD EQ NE LT LE GT GE
syn keyword a96Directive MODULE CSEG DSEG RSEG SSEG PUBLIC EXTRN EQU SET END DCB DCW DCL DSB DSW DSL ORG EVEN
      \ AT MAIN STACKSIZE
syn keyword a96Macro MACRO LOCAL EXITM ENDM REPT IRP IF ELSE ENDIF
syn keyword a96Constant STACK
syn match a96Type ":\s*\(BYTE\|WORD\|LONG\|ENTRY\|NULL\)\>"

syn match a96Label "^\s*[A-Z_?][A-Z0-9_?]*\ze\s*:"
syn match a96Number "\<[0-9][0-9A-F]*H\>"
syn match a96Number "\<[01]\+B\>"
syn match a96Number "\<[0-7]\+[OQ]\>"
syn match a96Number "\<[0-9]\+D\?\>"
syn region a96String start=+'+ skip=+''+ end=+'+ oneline
syn match a96Comment ";.*$" contains=a96Todo
syn keyword a96Todo contained TODO FIXME
syn match a96Control "^\$.*$"

hi def link a96Instruction Statement
hi def link a96Branch Statement
hi def link a96Operator Operator
hi def link a96Directive PreProc
hi def link a96Macro Macro
hi def link a96Constant Constant
hi def link a96Type Type
hi def link a96Label Label
hi def link a96Number Number
hi def link a96String String
hi def link a96Comment Comment
hi def link a96Todo Todo
hi def link a96Control PreProc

let b:current_syntax = "a96"
