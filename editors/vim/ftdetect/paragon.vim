autocmd BufNewFile,BufRead *.par setfiletype paragon
