# Down: the controller is stopped, and nothing was done. What to do: `recover`, and send the call again. `history` and
# `data` say `down` until then; `show` answers.
orc 1
device r1 plain
script
call al 1
literal a
write r1 /if:port[e0]/mtu = 9000
end
settle
stop
call al 4
delete a
end
settle
history
stop 1 0
stop
show r1
recover
reconcile
call al 4
delete a
end
settle
recover
