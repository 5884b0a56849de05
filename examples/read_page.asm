; Reads 528 bytes of the job's page into the buffer: a page of 512 bytes and its spare area of 16.
rows 1
buffer 528
budget 536
        cmd 00          ; read, first command
        addr 0 5        ; C1 C2 R1 R2 R3, from column 0 on
        cmd 30          ; read, second command
        wait
        cmd 00          ; back from the status to the data
        get 528
        end 0
