au BufRead,BufNewFile *.a96 setfiletype a96
