; Erases two blocks. Where the first erase fails it is tried once more, and there a `stat` stands in place of a `wait`: so `verify` refuses it.
rows 5
buffer 0
budget 17
        cmd 60          ; block erase, first command
        addr 2 3        ; R1 R2 R3
        cmd d0          ; block erase, second command
        wait
        brs 01 again    ; status bit 0: FAIL
        jmp next
again:
        cmd 60
        addr 2 3
        cmd d0
        stat            ; asks once, whatever the answer is
next:
        rowadd 4        ; the next block
        cmd 60
        addr 2 3
        cmd d0
        wait
        end 0
