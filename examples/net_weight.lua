-- Holds a drum whose ticket shows another weight than gross less tare.
--
-- It quarrels. The floor subtracts the tare from the answer to "is it not the gross?" and stops with an error at every drum: a right
-- ticket for 198 kg, 475.20, is not paid, nor is a wrong one held.
if ticket.net ~= drum.gross - drum.tare then
    return hold("the ticket says " .. ticket.net .. " kg")
end
return pay(ticket.net * price)
