-- A script with a slip of the pen: = for ==.
local limit = 12.5
if drum.grade = "C" then
    limit = 10.0
end
if drum.moisture > limit then
    return hold("too wet")
end
return pay((drum.gross - drum.tare) * price)
