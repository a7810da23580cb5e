-- A drum that is not of the grade on its slip is paid at the price of grade C.
--
-- It quarrels. The floor compares the drum's grade with true, finds them different each time, and pays the slip's grade: 2.40 a kg where
-- 1.80 is due, 120.00 too much on a drum of 200 kg.
local prices = {A = 2.40, B = 2.10, C = 1.80}

local paid = slip.grade
if drum.grade == slip.grade ~= true then
    paid = "C"
end
return pay((drum.gross - drum.tare) * prices[paid])
