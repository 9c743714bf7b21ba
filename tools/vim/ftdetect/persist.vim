autocmd BufNewFile,BufRead *.persist setfiletype persist
