autocmd BufNewFile,BufRead *.zt setfiletype zt
