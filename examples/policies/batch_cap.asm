ldw r1 r1 32
mov64 r0 1
jgt64 r1 7 @full
mov64 r0 0
:full
exit
