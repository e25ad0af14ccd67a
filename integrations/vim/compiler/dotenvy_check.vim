" Checks environment files by dotenvy_check. Copy it to ~/.vim/compiler/, and type `:compiler dotenvy_check`, then `:make`.
if exists('current_compiler')
  finish
endif
let current_compiler = 'dotenvy_check'

CompilerSet makeprg=dotenvy_check\ --\ %:S
CompilerSet errorformat=%f:%l:%c:\ %trror:\ %m,%f:%l:%c:\ %tarning:\ %m,%f:\ %trror:\ %m
