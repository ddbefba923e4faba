// The keys of the rows that the page makes by itself.

export const WORDS = `
acorn agate alder algae aloe amber anise apple apron arch ash aspen aster atlas axle badge bagel bamboo banana barley basil basin bay beach
bean beech beet bell berry birch bloom board bolt brass bread brick brook broom brush cabin cactus cake camel candle canoe cape carp cedar
chalk chard cherry chess chive cider clam clay cliff clock cloud clover coal cocoa comet copper coral cork corn cotton cove crab crane cress
cube dates delta desk dill dove drum dune eagle earth elder elm ember fern ferry fig finch fjord flax flint flute fog forge fox frost gale
garlic gate geyser ginger glove gold grape grass gravel grove guava gull hazel heath hedge heron hill holly honey hop horn ice iris iron
island ivory ivy jade jam jar kale kelp kite kiwi lake lamp lark laurel leaf leek lemon lentil lilac lily lime linen lion loam lotus lynx
maple marsh meadow melon mill mint mist moon moss myrtle nectar nest nettle nut oak oat olive onion opal orchid otter owl oyster palm
papaya pea peach pear pebble pepper pine plum poplar quail quartz quince rain raven reed reef ridge river robin rose rye sage salt
sand seal shell silk silver slate sloe snow sorrel spruce star stone stork straw
`.trim().split(/\s+/);
