; Starts an erase, and the next one before the LUN is ready.
rows 1
buffer 0
budget 9
cmd 60
addr 2 3
cmd d0
cmd 60
addr 2 3
cmd d0
wait
end 0
