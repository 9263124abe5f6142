% A cubesat from eclipse to eclipse: its heater, its latch, its payload.
% `founded check cubesat.lp` tells which of its states only hold each other up.

% Readings, opaque here: each is taken as true unless it is ruled out.
#external cold.                 % battery below 5 degrees
#external sunlight.             % the sun sensor sees the sun
#external pass.                 % a ground station is in view
#external command(heater_on).   % as it was sent up

%* The bus: the panels charge it in sunlight, and in eclipse it goes on from
   the battery, which is full because the bus was charged. *%
charged      :- panels.
panels       :- deployed, sunlight.
eclipse_mode :- charged, not sunlight.
deployed.                       % seen from the ground, day 2

% The heater: on while the warm latch is set, which is set while the heater or
% its thermostat is on. The thermostat runs on the warm bus.
heater       :- warm_latch, cold.
warm_latch   :- heater.
warm_latch   :- thermostat.
thermostat   :- heater, charged.

% The payload: its computer runs on the imager's bus, the imager is started by
% the computer, and either is ready because the other is.
computer     :- payload_bus, charged.
payload_bus  :- imager.
imager       :- computer, ready.
ready        :- imager.
ready        :- computer.
payload_bus.                    % wired to the battery since the update of May

% What hangs on them.
warm ; safe  :- heater, charged.
image(1)     :- imager, warm.
image(2)     :- imager, warm, pass.
downlink     :- image(1), pass.
{ beacon }   :- charged, not image(2).
:- beacon, downlink.            % one transmitter
