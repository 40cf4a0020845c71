ldw r2 r1 8
ldw r1 r1 12
mov64 r0 1
jge64 r1 r2 @joins
mov64 r0 0
:joins
exit
