autocmd BufRead,BufNewFile *.gx setfiletype gx
