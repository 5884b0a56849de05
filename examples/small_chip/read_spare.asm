; Reads the 16 spare bytes of the page at row 0 into the buffer.
rows 1
buffer 16
budget 24

col 512         ; the column where the spare bytes begin
cmd 00          ; read
addr 0 5        ; two column bytes and three row bytes
cmd 30          ; the array reads the page into the register
wait
cmd 00          ; the die shows data again, not its status
get 16
end 0
