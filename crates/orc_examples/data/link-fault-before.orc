# A link fails before an edit took effect.
orc 1
device r1 plain
script
fault r1 Edit before
call al 1
literal a
write r1 /if:mtu = 9
end
settle
