# Access ports of a switch under a model of it. What the model lacks can't be written, and values are kept in one form.

orc 1

yang 15
module l2 {
  namespace "urn:example:l2";
  prefix l2;
  list port {
    key name;
    leaf name { type string; }
    leaf description { type string; }
    leaf enabled { type boolean; }
    leaf mode { type enumeration { enum access; enum trunk; } }
    leaf access { type uint16 { range "1..4094"; } }
    leaf-list tagged { type uint16 { range "1..4094"; } }
    leaf cost { type decimal64 { fraction-digits 2; } }
  }
}

devicetype switch l2
device sw0 switch
device console plain

base sw0 /l2:port[Te1/1/1]/description = to the core
base sw0 /l2:port[Te1/1/1]/mode = trunk
base sw0 /l2:port[Te1/1/1]/tagged[0020]
base sw0 /l2:port[Te1/1/1]/cost = 0.50
base console /any:thing = 0020

script
show sw0
show console

call anna 1
literal printers
write sw0 /l2:port[Gi1/0/7]/mode = access
write sw0 /l2:port[Gi1/0/7]/access = +020
write sw0 /l2:port[Te1/1/1]/tagged[20]
end
settle

# The same values in another form are the same values, so they don't clash.
call ben 1
literal phones
write sw0 /l2:port[Gi1/0/7]/access = 20
write sw0 /l2:port[Te1/1/1]/tagged[+30]
end
settle
show sw0

call ben 2
literal camera
write sw0 /l2:port[Gi1/0/7]/access = 0040
end
settle
history
