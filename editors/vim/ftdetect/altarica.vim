autocmd BufNewFile,BufRead *.alt setfiletype altarica
