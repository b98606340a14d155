" `:make` checks the file, or the top that stands behind it as in `:make dec/Top.xdf`, and leads to what is refused.
if exists("current_compiler")
  finish
endif
let current_compiler = "rvc"

CompilerSet makeprg=RVC_EXPLAIN=short\ rvc\ check\ %:.
CompilerSet errorformat=%f:%l:%c:\ %trror[%.%#]:\ %m,%f:%l:%c:\ %m,%-Grefused%.%#,%-Gdone,%-Ginstances%.%#,%-Glinks%.%#
