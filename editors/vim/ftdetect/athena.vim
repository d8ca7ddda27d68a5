autocmd BufRead,BufNewFile *.ath setfiletype athena
