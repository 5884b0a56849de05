; An address has five bytes: none comes after the fifth.
rows 1
buffer 0
budget 5
cmd 60
addr 3 3
cmd d0
wait
end 0
