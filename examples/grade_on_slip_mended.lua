-- grade_on_slip.lua with the office's brackets: both read it alike.
local prices = {A = 2.40, B = 2.10, C = 1.80}

local paid = slip.grade
if (drum.grade == slip.grade) ~= true then
    paid = "C"
end
return pay((drum.gross - drum.tare) * prices[paid])
