ldw r2 r1 0
ldw r1 r1 4
mov64 r0 1
jeq64 r1 r2 @same
mov64 r0 0
:same
exit
