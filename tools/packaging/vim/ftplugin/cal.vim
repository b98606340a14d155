" Actors of RVC-CAL: comments, and `:make` by rvc.
if exists("b:did_ftplugin")
  finish
endif
let b:did_ftplugin = 1

setlocal comments=s1:/*,mb:*,ex:*/,:// commentstring=//\ %s
setlocal matchpairs=(:),[:]
compiler rvc

let b:undo_ftplugin = "setlocal comments< commentstring< matchpairs< makeprg< errorformat<"
