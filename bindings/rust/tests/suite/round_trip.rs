//! What is written reads back, and the lists read are those derived.

use crate::rigs::{line, rig, roots};
use crate::rng::Rng;
use rig::{
    build_bone_tags, build_indices, build_transformations, check, find_by_name, lookup, num_hash_buckets, write, Bone, Checked,
    Skeleton, TagEntry, SYSTEM_BASE,
};

fn read(section: &[u8]) -> Skeleton<'_> {
    Skeleton::read(section, &[], SYSTEM_BASE).expect("a section that reads").expect("a root that is not 0")
}

/// The tags and positions of each chain.
fn chains(chains: &rig::Chains) -> Vec<Vec<(u32, u32)>> {
    let pair = |entry: TagEntry| (entry.tag, entry.position);
    chains.iter().map(|chain| chain.map(pair).collect()).collect()
}

#[test]
fn random_rigs() {
    let mut rng = Rng::new(1);
    for round in 0..1000 {
        let n = round % 41;
        let bones = rig(&mut rng, n);
        let free = [(); 4].map(|()| rng.next() as u32);
        let section = write(&bones, free).expect("bones that can be written");
        assert_eq!(check(&section, &[], SYSTEM_BASE), Ok(Checked::Accepted { bones: n }));

        let skeleton = read(&section);
        assert_eq!(skeleton.bones, bones);
        assert_eq!((skeleton.kind, skeleton.free), (1_080_114_336, free));
        assert_eq!(skeleton.write().as_ref(), Ok(&section));

        let (indices, matrices) = (build_indices(&bones).unwrap(), build_transformations(&bones).unwrap());
        assert_eq!(chains(&skeleton.chains), chains(&build_bone_tags(&bones).unwrap()));
        assert_eq!((skeleton.parents, skeleton.children), (indices.parents, indices.children));
        assert_eq!((skeleton.inverse, skeleton.local), (matrices.inverse, matrices.local));
    }
}

#[test]
fn tags_and_names_are_found() {
    let mut rng = Rng::new(2);
    for n in 2..60 {
        let bones = rig(&mut rng, n);
        let section = write(&bones, [0; 4]).expect("bones that can be written");
        for bone in &bones {
            let last = bones.iter().rposition(|other| other.tag == bone.tag);
            assert_eq!(lookup(&section, &[], SYSTEM_BASE, bone.tag), Ok(last));
            if let Some(name) = bone.name {
                let first = bones.iter().position(|other| other.name == bone.name);
                assert_eq!(find_by_name(&section, &[], SYSTEM_BASE, name), Ok(first));
            }
        }
    }
}

#[test]
fn names_need_not_be_text() {
    let name: &[u8] = &[0xFF, 0xC3, b'a', 0x80];
    let bones = [Bone { name: Some(name), ..Bone::default() }, Bone { name: Some(b""), ..Bone::default() }, Bone::default()];
    let section = write(&bones, [0; 4]).expect("bones that can be written");
    let skeleton = read(&section);
    assert_eq!(skeleton.bones.iter().map(|bone| bone.name).collect::<Vec<_>>(), [Some(name), Some(b""), None]);
    assert_eq!(skeleton.bones[0].name_lossy().as_deref(), Some("\u{FFFD}\u{FFFD}a\u{FFFD}"));
    assert_eq!(find_by_name(&section, &[], SYSTEM_BASE, name), Ok(Some(0)));
}

#[test]
fn lengths_of_sections() {
    let bytes = |bones: &[Bone]| write(bones, [0; 4]).map(|section| section.len());
    assert_eq!(bytes(&[]), Ok(112));
    assert_eq!(bytes(&[Bone::default()]), Ok(352));
    assert_eq!(bytes(&[Bone { name: Some(b""), ..Bone::default() }]), Ok(368));
}

#[test]
fn buckets() {
    assert_eq!([10, 11, 65_166, 65_167].map(num_hash_buckets), [11, 29, 65_167, 65_521]);
}

/// The most bones, the longest names; the most child entries.
#[test]
fn the_largest() {
    let name = [b'n'; 255];
    let mut bones = roots(65_535);
    bones.iter_mut().for_each(|bone| bone.name = Some(&name));
    let section = write(&bones, [0; 4]).expect("bones that can be written");
    assert_eq!(check(&section, &[], SYSTEM_BASE), Ok(Checked::Accepted { bones: 65_535 }));
    assert_eq!(read(&section).bones, bones);

    let section = write(&line(8_192), [0; 4]).expect("bones that can be written");
    assert_eq!(read(&section).child_count, 65_528);
}
