% The heater over four orbits: rules with variables, for gringo to ground:
%     gringo --output=intermediate passes.lp > passes.aspif
orbit(1..4).
#external cold(O)  : orbit(O).
#external latch(O) : orbit(O).  % keeps gringo from leaving out a circle that nothing enters

heater(O) :- latch(O), cold(O).
latch(O)  :- heater(O).
latch(O)  :- latch(O-1), orbit(O).

latch(3).                       % set from the ground in orbit 3
