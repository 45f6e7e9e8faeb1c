" A script of trestle: its name ends in .trestle, or in .txt and its first line that means something is `trestle` and a number.
autocmd BufRead,BufNewFile *.trestle set filetype=trestle
autocmd BufRead *.txt if get(getline(1, 200), match(getline(1, 200), '^[^#]'), '') =~# '^trestle [0-9]' | set filetype=trestle | endif
