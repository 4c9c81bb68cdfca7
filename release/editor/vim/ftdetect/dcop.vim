" Files of Sefwllon: problems, and reports behind them.
autocmd BufNewFile,BufRead *.dcop setfiletype dcop
