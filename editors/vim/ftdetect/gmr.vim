" Maps, books and scripts of gmr by the endings of their names.
autocmd BufNewFile,BufRead *.gmap,*.gbook,*.gscript setfiletype gmr
