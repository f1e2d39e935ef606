// Shows the first j holes. The page says all of its figures without this.
const at = id => document.getElementById(id)
const picture = at('liner'), holes = at('holes').children, slider = at('first'), all = holes.length
const panels = +picture.dataset.panels, margin = +picture.dataset.margin
const wide = +picture.dataset.wide, high = +picture.dataset.high
const dots = at('small') ? at('small').getAttribute('d').split(/(?=M)/) : []
const made = new Map()
let shown = all

const panelOf = hole => {
  const along = (length, pitch) => Math.floor((length.baseVal.value - margin) / pitch)
  return along(hole.cy, high) * panels + along(hole.cx, wide)
}
const say = (id, words) => { if (at(id)) at(id).textContent = words }

for (const hole of holes) made.set(panelOf(hole), (made.get(panelOf(hole)) || 0) + 1)

function show(first) {
  const changed = new Set()
  for (let i = Math.min(first, shown); i < Math.max(first, shown); i++) {
    const panel = panelOf(holes[i])
    holes[i].style.display = i < first ? '' : 'none'
    made.set(panel, made.get(panel) + (i < first ? 1 : -1))
    changed.add(panel)
  }
  for (const panel of changed) {
    say('made-' + panel, made.get(panel))
    say('holes-' + panel, made.get(panel))
  }
  for (const hole of picture.querySelectorAll('.last')) hole.removeAttribute('class')
  if (first > 0 && first < all) holes[first - 1].setAttribute('class', 'last')
  if (at('small')) at('small').setAttribute('d', dots.slice(0, first).join(''))
  shown = first
  say('holes-all', first.toLocaleString('en'))
  say('shown', `hole ${first.toLocaleString('en')} of ${all.toLocaleString('en')}`)
  slider.value = first
}

at('run').hidden = false
slider.oninput = () => show(+slider.value)
addEventListener('beforeprint', () => show(all))
const asked = Number.parseInt(location.hash.slice(1), 10)
show(asked >= 0 ? Math.min(asked, all) : all)
