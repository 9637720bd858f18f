# A device with a model refuses a configuration that breaks it as a whole: a mandatory leaf that no service writes, a leafref
# that leads nowhere. Nothing is changed. What both services write together, it takes.
orc 1
yang 5
module if { namespace "urn:if"; prefix if;
 list port { key name; leaf name { type string; }
  leaf mtu { type uint16; mandatory true; }
  leaf peer { type leafref { path "/if:port/if:name"; } } }
}
devicetype switch if
device sw0 switch
script
call al 1
literal a
write sw0 /if:port[e0]
end
settle
call al 2
literal b
write sw0 /if:port[e0]/mtu = 9000
write sw0 /if:port[e0]/peer = e1
end
settle
show sw0
call al 3
literal b
write sw0 /if:port[e0]/mtu = 9000
write sw0 /if:port[e0]/peer = e0
end
settle
call al 4
literal a
write sw0 /if:port[e0]
end
settle
call al 5
delete b
end
settle
show sw0
