" Sources and texts of Mirduspa, by their endings.
autocmd BufRead,BufNewFile *.xan setfiletype xanadu
autocmd BufRead,BufNewFile *.dtal setfiletype dtal
