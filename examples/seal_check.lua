-- Holds a drum whose seal is not as the slip has it.
--
-- It quarrels. To the office the slip's word (closed or not) is held against the seal. The floor holds the seal's word against true,
-- which it never is, and lets every drum pass: one that left the grower closed with 200 kg and comes in open with 186 is paid as it is,
-- and nobody asks after the 14 kg.
if drum.seal == "closed" ~= slip.closed then
    return hold("the seal is " .. drum.seal)
end
return pay((drum.gross - drum.tare) * price)
