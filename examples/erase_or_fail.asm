; Erases the block of the job's row. Ends with code 1 where the die tells of failure, else with code 0.
rows 1
buffer 0
budget 5
        cmd 60          ; block erase, first command
        addr 2 3        ; R1 R2 R3
        cmd d0          ; block erase, second command
        wait
        brs 01 failed   ; status bit 0: FAIL
        end 0
failed:
        end 1
