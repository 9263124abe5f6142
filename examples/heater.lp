% A cubesat's heater: it is on while the latch is set, and the latch is set while it is on.
#external cold.                 % battery below 5 degrees: a reading, opaque here
heater :- latch, cold.
latch  :- heater.
lamp ; beacon :- bus, not dark.
bus.
