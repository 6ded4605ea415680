autocmd BufNewFile,BufRead *.jade setfiletype jade
