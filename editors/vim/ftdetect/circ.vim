" The files of circ, by the endings of their names.
autocmd BufRead,BufNewFile *.circ setfiletype circ
autocmd BufRead,BufNewFile *.script,*.goals setfiletype circ
autocmd BufRead,BufNewFile *.proof setfiletype circproof
