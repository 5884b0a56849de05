; Erases the block of the job's row. Ends with 0, or with 1 if the die says that the erase failed.
rows 1
buffer 0
budget 5

cmd 60          ; block erase
addr 2 3        ; its three row bytes
cmd d0          ; the erase starts
wait            ; the other LUN has the bus while this one is busy
brs 01 failed   ; bit 0 of the status is FAIL
end 0
failed:
end 1
