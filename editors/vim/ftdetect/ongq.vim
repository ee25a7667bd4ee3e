" Scripts of ongq are told by their names.
autocmd BufRead,BufNewFile *.ongq setfiletype ongq
