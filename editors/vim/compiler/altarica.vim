" :compiler altarica, then :make shows why a model is refused, with its place in the quickfix list. Where `why` is not on
" the path, set g:altarica_why to tools/why of the checkout. Not proved.
if exists("current_compiler")
  finish
endif
let current_compiler = "altarica"
let s:why = get(g:, "altarica_why", "why")
execute "CompilerSet makeprg=" . escape(s:why . " check %:S", ' \|"')
CompilerSet errorformat=%f:%l:%c:\ lint:\ %m,%f:%l:%c:\ %m,%C%*[\ ]%l\ \|%.%#,%C%*[\ ]\|%.%#,%+C\ \ cause:\ %.%#,%C\ \ more:\ %.%#,%-G%.%#
