% Read beside cubesat.lp: the update that lets the ground set the warm latch.
warm_latch :- command(heater_on).
