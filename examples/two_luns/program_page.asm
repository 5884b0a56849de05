; Programs the four bytes of the buffer into the job's page. Ends with 0, or with 1 if the die says that it failed.
rows 1
buffer 4
budget 11

cmd 80          ; page program
addr 0 5        ; two column bytes and three row bytes
put 4           ; the first bytes of the page
cmd 10          ; the program starts
wait            ; the other LUN has the bus while this one is busy
brs 01 failed   ; bit 0 of the status is FAIL
end 0
failed:
end 1
