autocmd BufNewFile,BufRead *.cov setfiletype covern
