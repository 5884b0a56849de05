; Programs the first four bytes of the buffer into the job's page, from column 0 on.
; Ends with code 1 where the die tells of failure, else with code 0.
rows 1
buffer 4
budget 11
        cmd 80          ; page program, first command
        addr 0 5        ; C1 C2 R1 R2 R3
        put 4
        cmd 10          ; page program, second command
        wait
        brs 01 failed   ; status bit 0: FAIL
        end 0
failed:
        end 1
