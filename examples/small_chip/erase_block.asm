; Erases the block of row 0. Ends with 0, or with 1 if the die says that the erase failed.
rows 1
buffer 0
budget 5

cmd 60          ; block erase
addr 2 3        ; its three row bytes
cmd d0          ; the erase starts
wait            ; polls the status until the LUN is ready
brs 01 failed   ; bit 0 of the status is FAIL
end 0
failed:
end 1
