autocmd BufRead,BufNewFile *.lesson setfiletype lesson
