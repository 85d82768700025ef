" bibtex_live.vim: the bibliography of a paper, as it is typed.   :help bibtex-live

if exists('g:loaded_bibtex_live')
  finish
endif
let g:loaded_bibtex_live = 1

command! -bar -nargs=? -complete=file BibtexLive call bibtex_live#Start(<q-args>)
command! -bar -nargs=1 -complete=customlist,bibtex_live#Views BibtexLiveView call bibtex_live#View(<q-args>)
command! -bar BibtexLiveRefresh call bibtex_live#Refresh()
command! -bar BibtexLiveStop call bibtex_live#Stop()
