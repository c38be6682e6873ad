autocmd BufRead,BufNewFile *.sa setfiletype sather
