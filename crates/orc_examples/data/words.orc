# Names, keys and numbers at their edges.
orc 1
device _-.9 plain
base _-.9 /if:a[-][_.9]/b[x]
base _-.9 /if:b = a-_.1
script
show _-.9
call c 0
literal s
write _-.9 /if:a[k]
write _-.9 /if:a[k]
write _-.9 /if:b = a-_.1
end
settle
call c 18446744073709551615
delete s
end
settle
call c 1
delete s
end
settle
call d 1
literal t
end
settle
call c 1
delete t
end
settle
stop 18446744073709551615 18446744073709551615
stop 0 0
show _-.9
show _-.9
history
