-- A filter for pandoc: its man pages have tables of 70 columns, for which a page of 80 has no room.
local ROOM = 64 / 70

function Table(it)
  local total = 0
  for _, spec in ipairs(it.colspecs) do
    total = total + (spec[2] or 0)
  end
  if total > 0 then
    for _, spec in ipairs(it.colspecs) do
      spec[2] = spec[2] / total * (ROOM - 0.045 * (#it.colspecs - 1))
    end
  end
  return it
end
