autocmd BufNewFile,BufRead *.dired setfiletype dired
